;;; lam-mode.el --- Colours and a language server for lam  -*- lexical-binding: t; -*-
;; Made by tools/editor/make.py.

;;; Code:

(defconst lam-folder (file-name-directory (file-truename (or load-file-name buffer-file-name)))
  "The folder of this file, with which the server's is known.")

(defvar lam-mode-syntax-table
  (let ((table (make-syntax-table)))
    (modify-syntax-entry ?_ "w" table)
    (modify-syntax-entry ?/ ". 12" table)
    (modify-syntax-entry ?\n ">" table)
    (modify-syntax-entry ?\" "\"" table)
    (modify-syntax-entry ?\\ "\\" table)
    table))

(defvar lam-font-lock-keywords
  `((,(regexp-opt '("class" "fn" "let" "catch" "else" "if" "return" "region" "while" "sync" "throw" "new" "spawn") 'words) . font-lock-keyword-face)
    (,(regexp-opt '("bool" "bytes" "caps" "dir" "int" "pipe" "file" "label" "tag" "thread") 'words) . font-lock-type-face)
    (,(regexp-opt '("false" "null" "true") 'words) . font-lock-constant-face)
    (,(concat (regexp-opt '("len" "size" "byte" "slice" "cat" "text" "number" "my_label" "my_caps" "root" "label_of" "copy" "mint" "say" "make_file" "make_dir" "open_file" "open_dir" "remove" "read" "length" "append" "cut" "make_pipe" "send" "send_caps" "receive" "receive_caps" "join") 'words) "[ \t]*(") 1 font-lock-builtin-face)
    ("\\_<fn[ \t]+\\(\\w+\\)" 1 font-lock-function-name-face)
    ("\\_<class[ \t]+\\(\\w+\\)" 1 font-lock-type-face)))

(defun lam-indent-line ()
  "Indents a line by two blanks for each bracket that is open."
  (interactive)
  (let ((depth (save-excursion (back-to-indentation)
                               (- (car (syntax-ppss)) (if (looking-at "[])}]") 1 0)))))
    (if (<= (current-column) (current-indentation))
        (indent-line-to (* 2 (max depth 0)))
      (save-excursion (indent-line-to (* 2 (max depth 0)))))))

;;;###autoload
(define-derived-mode lam-mode prog-mode "lam"
  "A mode for programs of lam."
  (setq-local comment-start "// ")
  (setq-local comment-end "")
  (setq-local indent-line-function #'lam-indent-line)
  (setq-local font-lock-defaults '(lam-font-lock-keywords)))

;;;###autoload
(define-derived-mode lam-world-mode prog-mode "lam world"
  "A mode for world documents of lam, and for their short texts.")

;;;###autoload
(progn
  (add-to-list 'auto-mode-alist '("\\.lam\\'" . lam-mode))
  (add-to-list 'auto-mode-alist '("\\.\\(world\\|short\\)\\'" . lam-world-mode)))

(defvar eglot-server-programs)
(with-eval-after-load 'eglot
  (add-to-list 'eglot-server-programs
               (list '(lam-mode lam-world-mode) (expand-file-name "../lam_server.py" lam-folder))))

(provide 'lam-mode)
;;; lam-mode.el ends here
