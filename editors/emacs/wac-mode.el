;;; wac-mode.el --- Major mode for WebAssembly Composition documents  -*- lexical-binding: t; -*-

;; Version: 0.11.0
;; Package-Requires: ((emacs "25.1"))
;; Keywords: languages

;;; Commentary:

;; Highlighting, comments and indentation for documents of the WebAssembly
;; Composition language (WAC), files that end with .wac.

;;; Code:

(defgroup wac nil
  "Editing documents of the WebAssembly Composition language."
  :group 'languages)

(defcustom wac-indent-offset 4
  "How many columns a bracket indents the lines within it."
  :type 'integer
  :safe #'integerp
  :group 'wac)

(defconst wac-keywords
  '("as" "async" "constructor" "enum" "export" "flags" "func" "import"
    "include" "interface" "let" "new" "package" "record" "resource" "static"
    "targets" "type" "use" "variant" "with" "world")
  "The keywords that are no types.")

(defconst wac-types
  '("bool" "borrow" "char" "error-context" "f32" "f64" "future" "list"
    "option" "result" "s16" "s32" "s64" "s8" "stream" "string" "tuple" "u16"
    "u32" "u64" "u8")
  "The keywords that are types.")

(defconst wac-package-regexp
  (let* ((word "\\(?:[a-z][a-z0-9]*\\|[A-Z][A-Z0-9]*\\)")
         (name (concat "%?" word "\\(?:-" word "\\)*")))
    (concat name "\\(?::" name "\\)+\\(?:/" name "\\)*"
            "\\(?:@[0-9]+\\(?:\\.[0-9A-Za-z+-]+\\)*\\)?"))
  "The name of a package or a path into one, perhaps with a version.")

(defconst wac-font-lock-keywords
  `((,wac-package-regexp . font-lock-constant-face)
    (,(regexp-opt wac-keywords 'symbols) . font-lock-keyword-face)
    (,(regexp-opt wac-types 'symbols) . font-lock-type-face))
  "What is highlighted beside comments and strings.")

(defvar wac-mode-syntax-table
  (let ((table (make-syntax-table)))
    (modify-syntax-entry ?/ ". 124b" table)
    (modify-syntax-entry ?* ". 23n" table)
    (modify-syntax-entry ?\n "> b" table)
    (modify-syntax-entry ?\" "\"" table)
    (modify-syntax-entry ?\\ "." table)
    (modify-syntax-entry ?- "_" table)
    (modify-syntax-entry ?% "_" table)
    (dolist (char '(?< ?> ?= ?+))
      (modify-syntax-entry char "." table))
    table)
  "The syntax of WAC: block comments nest, and strings have no escapes.")

(defun wac-syntactic-face (state)
  "The face of the comment or the string that the parse state STATE is in."
  (cond ((nth 3 state) font-lock-string-face)
        ((save-excursion
           (goto-char (nth 8 state))
           (looking-at-p "///\\|/\\*\\*\\(?:[^/]\\|\\'\\)"))
         font-lock-doc-face)
        (t font-lock-comment-face)))

(defun wac-indentation ()
  "The column to which the current line is indented, or nil where it stays.
A line is indented from the one in which its innermost bracket opens."
  (save-excursion
    (back-to-indentation)
    (let ((state (syntax-ppss)))
      (cond ((nth 8 state) nil)
            ((null (nth 1 state)) 0)
            (t (let ((closes (memq (char-after) '(?\} ?\) ?\]))))
                 (goto-char (nth 1 state))
                 (+ (current-indentation) (if closes 0 wac-indent-offset))))))))

(defun wac-indent-line ()
  "Indent the current line by the brackets around it."
  (interactive)
  (let ((column (wac-indentation)))
    (cond ((null column) 'noindent)
          ((<= (current-column) (current-indentation)) (indent-line-to column))
          (t (save-excursion (indent-line-to column))))))

;;;###autoload
(define-derived-mode wac-mode prog-mode "WAC"
  "Major mode for documents of the WebAssembly Composition language."
  (setq-local comment-start "// ")
  (setq-local comment-end "")
  (setq-local comment-start-skip "\\(?://+\\|/\\*+\\)[ \t]*")
  (setq-local indent-line-function #'wac-indent-line)
  (setq-local indent-tabs-mode nil)
  (setq-local electric-indent-chars (append "})]" electric-indent-chars))
  (setq-local font-lock-defaults
              '(wac-font-lock-keywords
                nil nil nil nil
                (font-lock-syntactic-face-function . wac-syntactic-face))))

;;;###autoload
(add-to-list 'auto-mode-alist '("\\.wac\\'" . wac-mode))

(provide 'wac-mode)

;;; wac-mode.el ends here
