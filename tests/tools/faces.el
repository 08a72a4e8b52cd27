;; Writes the face of each character of each file into FILE.faces, as names with spaces between them.
(load (expand-file-name "ick-mode.el" (getenv "EMACS_MODE")) nil t)
(dolist (file command-line-args-left)
  (with-temp-buffer
    (insert-file-contents file)
    (ick-mode)
    (font-lock-ensure)
    (let (names)
      (dotimes (at (1- (point-max)))
        (push (format "%s" (or (get-text-property (1+ at) 'face) "-")) names))
      (write-region (mapconcat #'identity (nreverse names) " ") nil (concat file ".faces") nil 'quiet))))
(setq command-line-args-left nil)
