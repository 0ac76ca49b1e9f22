;; -*- no-byte-compile: t -*-
(define-package "rpl-mode" "1.0" "Major mode for the Rosie Pattern Language" '((emacs "26.1")))
