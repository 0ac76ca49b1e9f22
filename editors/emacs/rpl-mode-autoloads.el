;;; rpl-mode-autoloads.el --- What Emacs reads of rpl-mode at its start -*- lexical-binding: t -*-
;;; Code:
(add-to-list 'load-path (file-name-directory load-file-name))
(autoload 'rpl-mode "rpl-mode" "Major mode for files of the Rosie Pattern Language." t)
(add-to-list 'auto-mode-alist '("\\.rpl\\'" . rpl-mode))
;; Local Variables:
;; no-byte-compile: t
;; End:
;;; rpl-mode-autoloads.el ends here
