;;; rpl-mode.el --- Major mode for the Rosie Pattern Language -*- lexical-binding: t -*-

;; Version: 1.0
;; Package-Requires: ((emacs "26.1"))
;; Keywords: languages
;; SPDX-License-Identifier: MIT

;;; Commentary:

;; Colours files *.rpl.  `M-x compile' runs their tests, and `M-x next-error' goes to the line and the column of a
;; fault; this needs `rosie' and `rosie-at' on the path.

;;; Code:

(defgroup rpl nil "Files of the Rosie Pattern Language." :group 'languages)

(defface rpl-name '((t :inherit font-lock-variable-name-face)) "Names that are used.")
(defface rpl-bound '((t :inherit font-lock-function-name-face)) "Names that are bound.")
(defface rpl-macro '((t :inherit font-lock-builtin-face)) "Macros.")
(defface rpl-halt '((t :inherit font-lock-warning-face)) "The word `halt'.")
(defface rpl-keyword '((t :inherit font-lock-keyword-face)) "Keywords.")
(defface rpl-number '((t :inherit font-lock-constant-face)) "Numbers.")
(defface rpl-sign '((t :inherit font-lock-builtin-face)) "Signs, as `/' and `!'.")
(defface rpl-quantifier '((t :inherit font-lock-regexp-grouping-construct)) "Quantifiers.")
(defface rpl-bad-escape '((t :inherit error)) "A backslash before a character that is not an escape.")
(defface rpl-escape '((t :inherit font-lock-regexp-grouping-backslash)) "Escapes.")
(defface rpl-bracket '((t :inherit font-lock-constant-face)) "Brackets.")
(defface rpl-set-sign '((t :inherit font-lock-builtin-face)) "Signs between brackets.")
(defface rpl-class '((t :inherit font-lock-type-face)) "Named classes of characters.")
(defface rpl-test '((t :inherit font-lock-doc-face)) "Tests in comments.")
(defface rpl-test-word '((t :inherit font-lock-keyword-face)) "The words of a test.")

(defvar rpl-mode-syntax-table
  (let ((table (make-syntax-table)))
    (modify-syntax-entry '(?! . ?/) "." table)
    (dolist (char '(?: ?< ?= ?> ?? ?\\ ?^ ?` ?| ?~))
      (modify-syntax-entry char "." table))
    (modify-syntax-entry ?\( "()" table)
    (modify-syntax-entry ?\) ")(" table)
    (modify-syntax-entry ?_ "w" table)
    (modify-syntax-entry ?\n ">" table)
    table)
  "The syntax of plain code.
`rpl--mark' marks comments and texts, since a bracket may hold their signs.")

(defconst rpl--text "\"\\(?:\\\\.\\|[^\"\\\n]\\)*\\(?:\"\\|\\\\?$\\)"
  "A text ends on its line.")

(defconst rpl--escape
  (concat "\\(\\\\\\(?:[][\\\"^:nrt-]\\|x[[:xdigit:]]\\{2\\}\\|u[[:xdigit:]]\\{4\\}\\|U[[:xdigit:]]\\{8\\}\\)\\)"
          "\\|\\(\\\\.\\)"))

;; Each character that is not plain code has the property `rpl-part': comment, test, test-text, text or bracket.

(defun rpl--put (from to part)
  "Mark FROM to TO as PART."
  (put-text-property from to 'rpl-part part))

(defun rpl--syntax (at syntax)
  "Give the character AT the class SYNTAX."
  (put-text-property at (1+ at) 'syntax-table (string-to-syntax syntax)))

(defun rpl--mark-comment ()
  "Mark the comment at point."
  (rpl--syntax (point) "<")
  (let ((end (line-end-position))
        (test (save-excursion
                (beginning-of-line)
                (looking-at-p "[ \t]*--[ \t]*test[ \t]"))))
    (rpl--put (point) end (if test 'test 'comment))
    (while (and test (re-search-forward rpl--text end t))
      (rpl--put (match-beginning 0) (match-end 0) 'test-text))
    (goto-char end)))

(defun rpl--mark-text ()
  "Mark the text at point.  Where it isn't closed, the line feed ends it."
  (looking-at rpl--text)
  (let* ((from (point))
         (to (match-end 0))
         (closed (and (> to (1+ from)) (eq (char-before to) ?\"))))
    (rpl--put from to 'text)
    (rpl--syntax from "|")
    (cond (closed (rpl--syntax (1- to) "|"))
          ((< to (point-max)) (rpl--syntax to "|")))
    (goto-char to)))

(defun rpl--mark-bracket ()
  "Mark the bracket at point.  Where it isn't closed, it ends on its line."
  (let ((from (point)) (end (line-end-position)) (depth 0) (open t))
    (while (and open (< (point) end))
      (pcase (char-after)
        (?\\ (forward-char)
             (when (< (point) end) (rpl--syntax (point) ".")))
        (?\[ (setq depth (1+ depth)))
        (?\] (setq depth (1- depth)
                   open (> depth 0))))
      (when (< (point) end) (forward-char)))
    (rpl--put from (point) 'bracket)))

(defun rpl--mark (start end)
  "Mark comments, texts and brackets between START and END, which are ends of lines."
  (remove-text-properties start end '(rpl-part nil))
  (goto-char start)
  (while (and (< (point) end) (re-search-forward "--\\|[\"[]" end t))
    (goto-char (match-beginning 0))
    (pcase (char-after)
      (?- (rpl--mark-comment))
      (?\" (rpl--mark-text))
      (_ (rpl--mark-bracket)))))

(defun rpl--in (parts regexp &optional not-before)
  "A matcher of REGEXP in PARTS, nil for plain code, where NOT-BEFORE doesn't follow."
  (lambda (limit)
    (let (found)
      (while (and (not found) (re-search-forward regexp limit t))
        (setq found (and (memq (get-text-property (match-beginning 0) 'rpl-part) parts)
                         (not (and not-before (save-match-data (looking-at-p not-before)))))))
      found)))

(defun rpl--run (part)
  "A matcher of a run of characters of PART."
  (lambda (limit)
    (let ((from (text-property-any (point) limit 'rpl-part part)))
      (when from
        (goto-char (next-single-property-change from 'rpl-part nil limit))
        (set-match-data (list from (point)))
        t))))

(defvar rpl-font-lock-keywords
  (let ((name "\\<[A-Za-z][A-Za-z0-9_]*"))
    `((,(rpl--in '(nil) (regexp-opt '("rpl" "package" "import" "as" "alias" "local" "grammar" "in" "end") 'words))
       . 'rpl-keyword)
      (,(rpl--in '(nil) "\\<halt\\>" "[ \t]*[=:.]") . 'rpl-halt)
      (,(rpl--in '(nil) "\\<\\(find\\|findall\\|keepto\\|ci\\|uci\\|message\\|error\\)[ \t]*:") 1 'rpl-macro)
      (,(rpl--in '(nil) (concat "\\(" name "\\)[ \t]*=")) 1 'rpl-bound)
      (,(rpl--in '(nil) (concat name "\\(?:\\.[A-Za-z][A-Za-z0-9_]*\\)?")) . 'rpl-name)
      (,(rpl--in '(nil) "{[ \t]*\\(?:[0-9]+[ \t]*\\(?:,[ \t]*[0-9]*[ \t]*\\)?\\|,[ \t]*[0-9]*[ \t]*\\)}\\|[*+?]")
       . 'rpl-quantifier)
      (,(rpl--in '(nil) "\\<[0-9]+\\>") . 'rpl-number)
      (,(rpl--in '(nil) "[(){}/&!<>.^$~=,:]") . 'rpl-sign)
      (,(rpl--run 'bracket) 0 'rpl-bracket prepend)
      (,(rpl--in '(bracket) "&&\\|--") 0 'rpl-set-sign prepend)
      (,(rpl--in '(bracket) "\\[:^?[A-Za-z0-9_]+:\\]") 0 'rpl-class prepend)
      (,(rpl--run 'test) 0 'rpl-test prepend)
      (,(rpl--run 'test-text) 0 'font-lock-string-face prepend)
      (,(rpl--in '(test) (regexp-opt '("test" "local" "accepts" "rejects" "includes" "excludes") 'words))
       0 'rpl-test-word prepend)
      (,(rpl--in '(text test-text bracket) rpl--escape) (1 'rpl-escape prepend t) (2 'rpl-bad-escape prepend t)))))

;;;###autoload
(define-derived-mode rpl-mode prog-mode "RPL"
  "Major mode for files of the Rosie Pattern Language."
  (setq-local comment-start "-- ")
  (setq-local comment-end "")
  (setq-local comment-start-skip "--+[ \t]*")
  (setq-local syntax-propertize-function #'rpl--mark)
  (setq-local font-lock-defaults '(rpl-font-lock-keywords))
  (setq-local imenu-generic-expression
              '((nil "^[ \t]*\\(?:\\(?:local\\|alias\\|grammar\\|in\\)[ \t]+\\)*\\([A-Za-z][A-Za-z0-9_]*\\)[ \t]*=" 1)))
  (when buffer-file-name
    (setq-local compile-command
                (format "rosie test --libpath . %s 2>&1 | rosie-at"
                        (shell-quote-argument (file-name-nondirectory buffer-file-name))))))

;;;###autoload
(add-to-list 'auto-mode-alist '("\\.rpl\\'" . rpl-mode))

(provide 'rpl-mode)

;;; rpl-mode.el ends here
