;; Makes random changes in each file, and shows after each of them what the mode says. Prints how often a face differs from
;; that of the whole text shown anew. Prints then how many milliseconds a key takes in the last file, at most and on average.
(load (expand-file-name "ick-mode.el" (getenv "EMACS_MODE")) nil t)
(random "ick")

(defconst pieces ["DO " "PLEASE " "READ" "OUT" "READOUT .1" " + " "NOT " "%50 " "(1)" " NEXT " "!1" "N'T" ".1 <- #2" "'" "\""
                  "X" "\n" " " ",1 SUB " "GIVE UP" "ABSTAIN FROM " "REINSTATE" "5" "PLEA" "SE" "D" "O" "NO" "T"])

(defun faces ()
  (let (found)
    (dotimes (at (1- (point-max)))
      (unless (memq (char-after (1+ at)) '(?\s ?\n))
        (push (get-text-property (1+ at) 'face) found)))
    found))

(defun show-change (start end length)
  (let ((around (funcall font-lock-extend-after-change-region-function start (min (point-max) (max end (1+ start))) length)))
    (font-lock-fontify-region (car around) (cdr around))))

(defun change ()
  (let* ((start (1+ (random (point-max)))) (end (min (point-max) (+ start (aref [0 0 1 3 9 40] (random 6))))))
    (goto-char (min start end))
    (delete-region (point) end)
    (dotimes (_ (random 4)) (insert (aref pieces (random (length pieces)))))
    (show-change (min start end) (point) (- end start))))

(let ((differing 0) (count 0))
  (dolist (file (butlast command-line-args-left))
    (with-temp-buffer
      (insert-file-contents file)
      (ick-mode)
      (font-lock-ensure)
      (dotimes (_ 40)
        (change)
        (setq count (1+ count))
        (let ((shown (faces)))
          (font-lock-ensure)
          (font-lock-fontify-region (point-min) (point-max))
          (unless (equal shown (faces)) (setq differing (1+ differing)))))))
  (princ (format "%d of %d\n" differing count)))

(with-temp-buffer
  (insert-file-contents (car (last command-line-args-left)))
  (ick-mode)
  (font-lock-ensure)
  (let (times)
    (dolist (part '(0.01 0.5 0.99))
      (goto-char (+ 1 (floor (* part (point-max)))))
      (end-of-line)
      (dolist (key (append "DO NOT X <- .1\n" nil))
        (let ((began (float-time)))
          (insert key)
          (show-change (1- (point)) (point) 0)
          (push (* 1000 (- (float-time) began)) times))))
    (princ (format "%.1f %.1f\n" (apply #'max times) (/ (apply #'+ times) (length times))))))
(setq command-line-args-left nil)
