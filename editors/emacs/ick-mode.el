;;; ick-mode.el --- INTERCAL-72 as ick reads it  -*- lexical-binding: t -*-

;; Put this file into a folder of `load-path', and (require 'ick-mode) into your init file.
;; M-x eglot starts the language server ick-lsp, if it is on the PATH.

;;; Code:

(defconst ick-mode--white "[\t-\r ]*")

(defconst ick-mode--identifier (concat "PLEASE" ick-mode--white "DO\\|PLEASE\\|DO"))

(defun ick-mode--pattern (text)
  "Return TEXT as a regular expression: a space in it stands for any white, or none."
  (replace-regexp-in-string " " ick-mode--white text t t))

(defconst ick-mode--words
  (ick-mode--pattern
   (concat "CALCULATING\\|NEXTING\\|FORGETTING\\|RESUMING\\|STASHING\\|RETRIEVING\\|IGNORING\\|REMEMBERING\\|ABSTAINING"
           "\\|REINSTATING\\|WRITING IN\\|READING OUT\\|NEXT\\|FORGET\\|RESUME\\|STASH\\|RETRIEVE\\|IGNORE\\|REMEMBER"
           "\\|ABSTAIN\\|FROM\\|REINSTATE\\|GIVE UP\\|WRITE IN\\|READ OUT\\|SUB\\|BY")))

(defconst ick-mode--library
  (ick-mode--pattern "BEFORE THE LIBRARY BEGINS\\|EXPECT NO ANSWER, FOR THE RESULT IS TOO LARGE")
  "What the library's two statements say that can't be read on purpose.")

(defun ick-mode--comment (limit)
  "Find a comment before LIMIT: NOT or N'T behind an identifier, up to the next start."
  (when (re-search-forward
         (ick-mode--pattern (concat "\\(?:" ick-mode--identifier "\\) \\(?:% [0-9]+ \\)?\\(N\\(?:OT\\|'T\\)\\)"))
         limit t)
    (let ((start (match-beginning 1)))
      ;; the DO of READOUT in front of a list is no start
      (when (looking-at (ick-mode--pattern "\\(?: % [0-9]+\\)? READOUT [.:,;#]"))
        (goto-char (match-end 0)))
      (let ((end (if (re-search-forward "DO\\|PLEASE" nil t) (match-beginning 0) (point-max))))
        (goto-char end)
        ;; a label in front of the start belongs to it, but not behind FROM or REINSTATE
        (when (and (looking-back (ick-mode--pattern "( [0-9]+ ) ") start t)
                   (let ((label (match-beginning 0)))
                     (goto-char label)
                     (prog1 (not (looking-back (ick-mode--pattern "\\(?:FROM\\|REINSTATE\\) ") start))
                       (goto-char end)
                       (set-match-data (list label end)))))
          (setq end (match-beginning 0)))
        ;; what lies behind LIMIT has its face already, and a match that has a face is passed over
        (setq end (min end limit))
        (goto-char end)
        (set-match-data (list start end))
        t))))

(defconst ick-mode-font-lock-keywords
  `((ick-mode--comment . font-lock-comment-face)
    (,ick-mode--library . font-lock-doc-face)
    (,ick-mode--words . font-lock-builtin-face)
    (,ick-mode--identifier . font-lock-keyword-face)
    (,(ick-mode--pattern "% [0-9]+") . font-lock-preprocessor-face)
    (,(ick-mode--pattern "( [0-9]+ )") . font-lock-function-name-face)
    ("[0-9]+" . font-lock-constant-face)
    ("<-\\|[.:,;#&V?$~'\"!+]" . font-lock-variable-name-face)
    ("[^\t-\r ]" . font-lock-warning-face))
  "What a program shows in which face. What nothing else takes can't be read.")

;; A comment ends at the next identifier, or at the second one if the first one is in READOUT. So a change makes no other
;; face in front of the second identifier before it, or behind the third one from the word that it is in.
(defun ick-mode--around (start end)
  "Return the places from which and up to which a text from START to END has to be shown again."
  (let ((case-fold-search nil))
    (save-excursion
      (save-restriction
        (widen)
        (cons (progn (goto-char start)
                     (re-search-backward ick-mode--identifier nil 'to-the-start 2)
                     (while (and (looking-back "REA\\|U" (- (point) 3)) ; READOUT, GIVE UP
                                 (re-search-backward ick-mode--identifier nil 'to-the-start)))
                     (point))
              (progn (goto-char end)
                     (skip-chars-backward "A-Z" (- (point) 5)) ; PLEASE
                     (re-search-forward ick-mode--identifier nil 'to-the-end 3)
                     (skip-chars-forward "UT") ; READOUT
                     (point)))))))

(defun ick-mode--changed (start end _length)
  "Return what has to be shown again after a change from START to END."
  (ick-mode--around start end))

(defvar font-lock-beg)
(defvar font-lock-end)

(defun ick-mode--extend ()
  "Show whole statements at a time, since a comment can begin in an earlier line."
  (let ((around (ick-mode--around font-lock-beg font-lock-end)))
    (setq font-lock-beg (max (point-min) (car around))
          font-lock-end (min (point-max) (cdr around)))))

;;;###autoload
(define-derived-mode ick-mode prog-mode "INTERCAL"
  "Major mode for INTERCAL-72."
  (setq-local font-lock-defaults '(ick-mode-font-lock-keywords t nil)
              font-lock-extend-after-change-region-function #'ick-mode--changed
              ;; it is called once for each text, and no other function extends what it has found
              font-lock-extend-region-functions '(ick-mode--extend)
              comment-start "DO NOTE "
              comment-start-skip "\\(?:DO\\|PLEASE\\)[\t-\r ]*N\\(?:OT\\|'T\\)E?[\t-\r ]*"
              comment-end ""))

(defun ick-mode-p ()
  "Return whether the buffer has a file NAME.i with DO or PLEASE in its first lines."
  (and buffer-file-name
       (string-suffix-p ".i" buffer-file-name)
       (let ((case-fold-search nil))
         (save-excursion
           (goto-char (point-min))
           (re-search-forward "DO\\|PLEASE" (line-end-position 50) t)))))

;;;###autoload
(add-to-list 'magic-mode-alist '(ick-mode-p . ick-mode))

(defvar eglot-server-programs)
(with-eval-after-load 'eglot
  (add-to-list 'eglot-server-programs '(ick-mode . ("ick-lsp"))))

(provide 'ick-mode)
;;; ick-mode.el ends here
