;; What Emacs shows of a source while it is edited, by eglot, with `tbc lsp` as its server. TBC names the program.
(require 'eglot)
(require 'tinybasic-mode)
(setq eglot-sync-connect t
      tinybasic-program (getenv "TBC"))

(defun shown ()
  "The findings that flymake shows, a line each, in the order of their places."
  (mapconcat
   (lambda (it)
     (goto-char (flymake-diagnostic-beg it))
     (format "%d:%d %s" (line-number-at-pos) (current-column) (flymake-diagnostic-text it)))
   (sort (flymake-diagnostics)
         (lambda (one other) (< (flymake-diagnostic-beg one) (flymake-diagnostic-beg other))))
   "\n"))

(defun shows (wanted)
  "Waits until the findings are these, for ten seconds at most."
  (let ((tries 0))
    (while (and (< tries 200) (not (equal (shown) wanted)))
      (setq tries (1+ tries))
      (accept-process-output nil 0.05)
      (flymake-start))
    (unless (equal (shown) wanted)
      (error "Emacs shows:\n%s\nwanted:\n%s" (shown) wanted))))

(defun replace-text (old new)
  "Writes NEW in place of OLD, and tells the server."
  (goto-char (point-min))
  (search-forward old)
  (replace-match new t t)
  (eglot--signal-textDocument/didChange))

(with-current-buffer (find-file-noselect "worked.bas")
  (apply #'eglot (eglot--guess-contact))
  (shows (concat "1:10 tbc [bad-byte]: bad byte: a text holds letters, digits, spaces and the signs from ! to @\n"
                 "3:6 tbc [syntax]: syntax: did you mean PRINT"))
  (replace-text "é" "E")
  (shows "3:6 tbc [syntax]: syntax: did you mean PRINT")
  (replace-text "PRIMT" "END")
  (shows "2:0 tbc [no-line]: no line 99")
  (replace-text "99" "30")
  (shows "")
  (let* ((server (eglot-current-server))
         (document (list :uri (eglot--path-to-uri buffer-file-name)))
         (asks (lambda (method line character &rest others)
                 (jsonrpc-request
                  server method
                  `(:textDocument ,document :position (:line ,line :character ,character) ,@others))))
         (line (lambda (it) (plist-get (plist-get (plist-get it :range) :start) :line))))
    (unless (equal (funcall line (funcall asks :textDocument/definition 1 8)) 2)
      (error "Emacs gets another definition"))
    (unless (equal (mapcar line (funcall asks :textDocument/references 2 0 :context '(:includeDeclaration t))) '(1 2))
      (error "Emacs gets other references"))
    (unless (string-prefix-p "line 20: $"
                             (plist-get (plist-get (funcall asks :textDocument/hover 1 0) :contents) :value))
      (error "Emacs gets another hover"))
    (unless (equal (mapcar (lambda (it) (plist-get it :label))
                           (plist-get (funcall asks :textDocument/completion 1 4) :items))
                   '("GOTO" "GOSUB"))
      (error "Emacs is offered something else"))
    (unless (equal (append (plist-get (jsonrpc-request server :textDocument/semanticTokens/full
                                                       (list :textDocument document))
                                      :data)
                           nil)
                   '(0 0 2 2 1 0 3 5 0 0 0 6 3 3 0 1 0 2 2 1 0 3 4 0 0 0 5 2 2 0 1 0 2 2 1 0 3 3 0 0))
      (error "Emacs gets other tokens")))
  (eglot-shutdown (eglot-current-server)))
