;;; gfs.el --- M-x compile jumps to the places of refusals of gfs -*- lexical-binding: t -*-

;;; Commentary:
;; Load this file, and call gfs by M-x compile, as in: gfs FoodsEng.gf </dev/null

;;; Code:
(require 'compile)

(add-to-list 'compilation-error-regexp-alist-alist
             '(gfs "^refused [A-Za-z0-9]+ at \\(.+?\\):\\([0-9]+\\):\\([0-9]+\\)" 1 2 3))
(add-to-list 'compilation-error-regexp-alist 'gfs)

(provide 'gfs)
;;; gfs.el ends here
