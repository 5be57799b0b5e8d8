;;; aplcalc.el --- Sessions and files of the calculator aplcalc  -*- coding: utf-8; lexical-binding: t -*-

;; Author: The aplcalc authors
;; SPDX-License-Identifier: MIT
;; Version: 1.0.0
;; Package-Requires: ((emacs "26.1"))
;; Keywords: languages, processes

;;; Commentary:

;; aplcalc is a calculator for APL over whole numbers and characters.
;;
;; `M-x aplcalc' starts a session: each line that you type comes after six
;; blanks, and its answer is below it.  A file whose name ends in .apl
;; opens in `aplcalc-mode', which sends its lines to the session:
;;
;;   C-c C-l   the line at point, and on to the next line
;;   C-c C-r   the lines of the region
;;   C-c C-b   all lines
;;   C-c C-z   shows the session
;;
;; Both have colours, and the input method `aplcalc': a backquote and a key
;; of a keyboard of the United States type the symbol that the system's
;; layout `apl' has on that key.  Two backquotes type one.  C-\ switches the
;; input method off and on.
;;
;; Put this file on the `load-path', and these lines into your init file:
;;
;;   (require 'aplcalc)
;;   (setq aplcalc-program "/path/to/aplcalc")  ; unless it is on the PATH

;;; Code:

(require 'comint)
(require 'quail)
(require 'subr-x)

(defgroup aplcalc nil
  "Sessions and files of the calculator aplcalc."
  :group 'languages)

(defcustom aplcalc-program "aplcalc"
  "The calculator: a name on the PATH, or the path of the program."
  :type 'file)

(defcustom aplcalc-arguments nil
  "Options that the calculator is started with, such as \"--workers\" \"8\"."
  :type '(repeat string))

;;; The symbols

(quail-define-package
 "aplcalc" "UTF-8" "APL" t "The symbols of aplcalc, by a backquote and a key."
 nil t nil nil nil nil nil nil nil nil t)

(quail-define-rules
 ("`2" ?¯)
 ("`-" ?×)
 ("`=" ?÷)
 ("`4" ?≤)
 ("`6" ?≥)
 ("`8" ?≠)
 ("`0" ?∧)
 ("`9" ?∨)
 ("`)" ?⍲)
 ("`(" ?⍱)
 ("`s" ?⌈)
 ("`d" ?⌊)
 ("`[" ?←)
 ("`r" ?⍴)
 ("`i" ?⍳)
 ("`e" ?∊)
 ("`y" ?↑)
 ("`u" ?↓)
 ("`%" ?⌽)
 ("`&" ?⊖)
 ("`^" ?⍉)
 ("`/" ?⌿)
 ("`." ?⍀)
 ("`$" ?⍋)
 ("`#" ?⍒)
 ("`b" ?⊥)
 ("`n" ?⊤)
 ("`j" ?∘)
 ("`," ?⍝)
 ("`h" ?∆)
 ("`>" ?⍙)
 ("``" ?`))

;;; The colours

(defconst aplcalc--headings
  (concat "^\\(?:\\(?:"
          (regexp-opt '("SYNTAX" "VALUE" "INDEX" "RANK" "LENGTH" "DOMAIN" "LIMIT" "CHARACTER"))
          "\\) ERROR\\|WS FULL\\|INCORRECT COMMAND\\)$")
  "The headings of reports.")

(defun aplcalc--answer-p ()
  "Tell whether the line at point is a line that the calculator wrote."
  (and (derived-mode-p 'aplcalc-session-mode)
       (save-excursion
         (forward-line 0)
         (not (looking-at-p "      ")))))

(defun aplcalc--typed (regexp)
  "Make a matcher of font lock for REGEXP outside of answers."
  (lambda (limit)
    (let (found)
      (while (and (setq found (re-search-forward regexp limit t))
                  (save-excursion (goto-char (match-beginning 0)) (aplcalc--answer-p))))
      found)))

(defvar aplcalc-font-lock-keywords
  `((,aplcalc--headings . 'error)
    ("^ \\{6,\\}\\(∧\\)$" 1 'error)
    ("\\`#!.*" . 'font-lock-comment-face)
    (,(aplcalc--typed "\\('\\(?:[^'\n]\\|''\\)*'\\)\\|\\(⍝.*\\)\\|\\('.*\\)")
     (1 'font-lock-string-face nil t)
     (2 'font-lock-comment-face nil t)
     (3 'font-lock-warning-face nil t))
    (,(aplcalc--typed "^ *)\\(?:ORIGIN\\|WIDTH\\|CLEAR\\|OFF\\)\\>") . 'font-lock-preprocessor-face)
    (,(aplcalc--typed "[A-Za-z∆⍙][A-Za-z∆⍙0-9_]*") . 'font-lock-variable-name-face)
    (,(aplcalc--typed "¯?[0-9]+") . 'font-lock-constant-face)
    (,(aplcalc--typed "[-+×÷|!⌊⌈~*∧∨⍲⍱<≤=≥>≠⍴,⍳∊↑↓⌽⊖⍉⍋⍒⊥⊤]") . 'font-lock-function-name-face)
    (,(aplcalc--typed "[/⌿\\⍀.∘]") . 'font-lock-type-face)
    (,(aplcalc--typed "←") . 'font-lock-keyword-face)
    (,(aplcalc--typed "[\"#$%&:?@^{}`]") . 'font-lock-warning-face)
    (,(aplcalc--typed "[^ -~\n¯×÷←↑↓∆∊∘∧∨≠≤≥⊖⊤⊥⌈⌊⌽⌿⍀⍉⍋⍒⍙⍝⍱⍲⍳⍴]") 0 'font-lock-warning-face t))
  "The colours of sessions and files.
The last two rows are characters that have no meaning, and those that the
calculator refuses wherever they are, also in texts and comments.")

(defun aplcalc--set-up ()
  "Set what sessions and files have in common."
  (setq-local font-lock-defaults '(aplcalc-font-lock-keywords t))
  (setq-local comment-start "⍝ ")
  (setq-local comment-end "")
  (setq-local comment-start-skip "⍝+ *")
  (setq-local comment-use-syntax nil)
  (setq-local indent-tabs-mode nil)
  (activate-input-method "aplcalc"))

;;; Sessions

;; After each line goes a line that makes the calculator write a mark, by
;; which the end of the answer is known.  The mark is never shown.

(defconst aplcalc--prompt "      "
  "What each typed line begins with.")

(defvar-local aplcalc--mark nil
  "The text that the calculator writes at the end of each answer.")

(defvar-local aplcalc--busy nil
  "Non-nil while the mark of the last line has not come.")

(defvar-local aplcalc--held ""
  "The end of what came that may be the front of the mark.")

(defvar-local aplcalc--lines nil
  "The lines that wait for the answer of the last one.")

(defvar aplcalc-session-mode-map
  (let ((map (make-sparse-keymap)))
    (define-key map (kbd "RET") #'aplcalc-send-input)
    map)
  "The keys of a session.")

(define-derived-mode aplcalc-session-mode comint-mode "Aplcalc"
  "A session of the calculator aplcalc.
\\{aplcalc-session-mode-map}"
  (aplcalc--set-up)
  (setq-local comint-prompt-read-only t)
  (setq-local comint-prompt-regexp "^      ")
  (setq-local comint-input-sender #'aplcalc--send)
  (setq-local comint-input-ignoredups t)
  (setq-local comint-move-point-for-output 'others)
  (setq-local comint-dynamic-complete-functions nil)
  (add-hook 'comint-preoutput-filter-functions #'aplcalc--take nil t)
  (add-hook 'comint-output-filter-functions #'aplcalc--send-next nil t))

;;;###autoload
(defun aplcalc ()
  "Show the session of the calculator, and start one if there is none."
  (interactive)
  (pop-to-buffer (aplcalc--session)))

(defun aplcalc--session ()
  "Return the buffer of the session; start the calculator if need be."
  (let ((buffer (get-buffer-create "*aplcalc*")))
    (unless (comint-check-proc buffer)
      (aplcalc--start buffer))
    buffer))

(defun aplcalc--start (buffer)
  "Start the calculator in BUFFER."
  (unless (executable-find aplcalc-program)
    (user-error "There is no program %s: set `aplcalc-program'" aplcalc-program))
  (with-current-buffer buffer
    (unless (derived-mode-p 'aplcalc-session-mode)
      (aplcalc-session-mode))
    (goto-char (point-max))
    (unless (bolp)
      (insert "\n"))
    (setq aplcalc--mark (format "%08x%08x%08x" (random #x10000000) (random #x10000000) (random #x10000000))
          aplcalc--held ""
          aplcalc--lines nil)
    (let ((process-connection-type nil)
          (coding-system-for-read 'utf-8-unix)
          (coding-system-for-write 'utf-8-unix))
      (apply #'make-comint-in-buffer "aplcalc" buffer aplcalc-program nil aplcalc-arguments))
    (aplcalc--send (get-buffer-process buffer) "")))

(defun aplcalc--send (process line)
  "Send LINE to PROCESS, and after it the line that writes the mark.
Comint gave the typed line a face of its own, which hides the colours."
  (setq aplcalc--busy t)
  (with-silent-modifications
    (remove-text-properties comint-last-input-start comint-last-input-end '(font-lock-face nil)))
  (font-lock-flush comint-last-input-start comint-last-input-end)
  (comint-send-string process (format "%s\n'%s'\n" line aplcalc--mark)))

(defun aplcalc--take (text)
  "Return what is to be shown of TEXT, which came from the calculator.
That is all but the mark; the prompt is shown where the mark was."
  (let* ((text (concat aplcalc--held text))
         (mark (concat aplcalc--mark "\n"))
         (done (string-suffix-p mark text))
         (shown (if done (string-remove-suffix mark text) text))
         (line (string-match-p "[^\n]*\\'" shown))
         (hold (and (not done) (string-prefix-p (substring shown line) mark))))
    (setq aplcalc--held (if hold (substring shown line) ""))
    (when done
      (setq aplcalc--busy nil))
    (concat (if hold (substring shown 0 line) shown)
            (and done aplcalc--prompt))))

(defun aplcalc--send-next (_output)
  "Send the next line that waits, if the last one was answered.
What was typed at the prompt stays there."
  (let ((process (get-buffer-process (current-buffer))))
    (when (and aplcalc--lines (not aplcalc--busy) (process-live-p process))
      (let* ((start (process-mark process))
             (follow (>= (point) start))
             (here (copy-marker (point)))
             (typed (delete-and-extract-region start (point-max))))
        (goto-char start)
        (insert (pop aplcalc--lines))
        (comint-send-input)
        (goto-char (process-mark process))
        (insert typed)
        (unless follow
          (goto-char here))))))

(defun aplcalc--queue (buffer text)
  "Let the session in BUFFER answer the lines of TEXT in turn."
  (with-current-buffer buffer
    (setq aplcalc--lines (append aplcalc--lines (split-string (string-remove-suffix "\n" text) "\n")))
    (aplcalc--send-next "")))

(defun aplcalc-send-input ()
  "Answer the lines that were typed at the prompt, or the earlier one at point."
  (interactive)
  (let ((process (get-buffer-process (current-buffer))))
    (unless process
      (user-error "The calculator has ended: M-x aplcalc starts it again"))
    (aplcalc--queue (current-buffer)
                    (if (< (point) (process-mark process))
                        (funcall comint-get-old-input)
                      (delete-and-extract-region (process-mark process) (point-max))))
    (when aplcalc--lines
      (message "Lines that wait for the last answer: %d" (length aplcalc--lines)))))

;;; Files

(defvar aplcalc-mode-map
  (let ((map (make-sparse-keymap)))
    (define-key map (kbd "C-c C-l") #'aplcalc-send-line)
    (define-key map (kbd "C-c C-r") #'aplcalc-send-region)
    (define-key map (kbd "C-c C-b") #'aplcalc-send-buffer)
    (define-key map (kbd "C-c C-z") #'aplcalc)
    map)
  "The keys of a file of lines.")

;;;###autoload
(define-derived-mode aplcalc-mode prog-mode "Aplcalc"
  "A file of lines for the calculator aplcalc.
\\{aplcalc-mode-map}"
  (aplcalc--set-up))

;;;###autoload
(add-to-list 'auto-mode-alist '("\\.apl\\'" . aplcalc-mode))
;;;###autoload
(add-to-list 'interpreter-mode-alist '("aplrun" . aplcalc-mode))

(defun aplcalc-send-region (start end)
  "Let the session answer the lines between START and END."
  (interactive "r")
  (let ((session (aplcalc--session)))
    (aplcalc--queue session (buffer-substring-no-properties start end))
    (display-buffer session)))

(defun aplcalc-send-line ()
  "Let the session answer the line at point, and go on to the next line."
  (interactive)
  (aplcalc-send-region (line-beginning-position) (line-end-position))
  (forward-line))

(defun aplcalc-send-buffer ()
  "Let the session answer all lines of this file."
  (interactive)
  (save-excursion
    (goto-char (point-min))
    (when (looking-at-p "#!")
      (forward-line))
    (aplcalc-send-region (point) (point-max))))

(provide 'aplcalc)

;;; aplcalc.el ends here
