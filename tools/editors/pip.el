;;; pip.el --- Scripts, assembly texts and sources of pip  -*- lexical-binding: t -*-

;; In init.el, with the checkout's path:
;;     (load "/home/me/pip/tools/editors/pip.el")
;; With (setq pip-unproved t) before it, the program is the one that ./pip --unproved has built.

;;; Code:

(defvar pip-unproved nil "Whether to use the program that ./pip --unproved has built by cargo.")

(defconst pip-checkout
  (expand-file-name "../.." (file-name-directory (file-truename (or load-file-name buffer-file-name)))))

(defun pip-words (tool)
  "The command line of TOOL of the checkout."
  (append (list "python3" "-B" (expand-file-name (concat "tools/" tool) pip-checkout))
          (and pip-unproved '("--unproved"))))

(defconst pip-colours
  '(("^\\s-*\\([A-Za-z_][A-Za-z0-9_]*\\):" 1 font-lock-function-name-face)
    ("^\\s-*\\(\\.[a-z]+\\)" 1 font-lock-preprocessor-face)
    ("^\\s-*\\(?:[A-Za-z_][A-Za-z0-9_]*:\\s-*\\)?\\([a-z]+\\)\\_>" 1 font-lock-keyword-face)
    ("\\_<r\\(?:[0-9]\\|1[0-5]\\)\\_>" . font-lock-variable-name-face)
    ("\\_<\\(?:0x[0-9a-f]+\\|[0-9]+\\)\\_>" . font-lock-constant-face)))

;;;###autoload
(define-derived-mode pip-mode prog-mode "pip"
  "Scripts and assembly texts of pip."
  (modify-syntax-entry ?_ "_")
  (modify-syntax-entry ?# "<")
  (modify-syntax-entry ?\n ">")
  (setq-local comment-start "# " font-lock-defaults '(pip-colours)))

;;;###autoload
(define-derived-mode pip-asmx-mode pip-mode "pip asmx" "Sources of tools/asmx.")

(add-to-list 'auto-mode-alist '("\\.pip\\'" . pip-mode))
(add-to-list 'auto-mode-alist '("\\.asmx\\'" . pip-asmx-mode))
;; The suffix .s is another language's outside of the checkout.
(add-to-list 'auto-mode-alist
             (cons (concat "\\`" (regexp-quote (file-name-as-directory pip-checkout)) ".*\\.s\\'") 'pip-mode))

;; M-x eglot starts the language server; Emacs 29 has eglot, and Debian 12 the package elpa-eglot.
(with-eval-after-load 'eglot
  (add-to-list 'eglot-server-programs (cons '(pip-mode pip-asmx-mode) (pip-words "language_server"))))

;; M-x dape starts the debugger, if the package dape is installed.
(with-eval-after-load 'dape
  (add-to-list 'dape-configs
               `(pip modes (pip-mode pip-asmx-mode) command "python3" command-args ,(cdr (pip-words "debug_adapter"))
                     :type "pip" :request "launch" :program dape-buffer-default)))

;; M-x dap-debug starts it, if the package dap-mode is installed.
(with-eval-after-load 'dap-mode
  (dap-register-debug-provider
   "pip" (lambda (given) (plist-put given :dap-server-path (pip-words "debug_adapter"))))
  (dap-register-debug-template
   "pip: this file" (list :type "pip" :request "launch" :name "pip: this file" :program "${file}")))

(provide 'pip)
;;; pip.el ends here
