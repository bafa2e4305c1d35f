#!/usr/bin/env bash
# Tries what editors do with the built program: in Emacs, flymake shows what `tbc check` says of a buffer while it is
# typed, and vim's `:make` fills its list of errors. The settings that docs/EDITORS.md shows for others are at least
# well formed.
. "$(dirname "${BASH_SOURCE[0]}")/../setup.sh"
needs_program
needs python3
installs emacs emacs-nox
installs vim vim
printf '10 REM count\n20 A=0\n30 FOR I=1 TO 10\n' >bad.bas
printf '10 GOTO 20\n' >warned.bas
printf '10 PRINT "A"\n20 END\n' >good.bas
cat >flymake.el <<'END'
(require 'tinybasic-mode)
(defun findings (name change)
  "What flymake shows of a file after a change, each with its line, column, kind and text."
  (with-current-buffer (find-file-noselect name)
    (unless (eq major-mode 'tinybasic-mode) (error "%s is no Tiny BASIC" name))
    (funcall change)
    (flymake-mode 1)
    (flymake-start)
    (let ((tries 0))
      (while (and (< tries 200) (buffer-live-p (process-buffer tinybasic--process)))
        (setq tries (1+ tries))
        (accept-process-output nil 0.05)))
    (dolist (it (sort (flymake-diagnostics) (lambda (one other) (< (flymake-diagnostic-beg one) (flymake-diagnostic-beg other)))))
      (goto-char (flymake-diagnostic-beg it))
      (princ (format "%s:%d:%d: %s: %s\n" name (line-number-at-pos) (1+ (current-column))
                     (flymake-diagnostic-type it) (flymake-diagnostic-text it))))
    (princ (format "%s: %d\n" name (length (flymake-diagnostics))))))
(findings "bad.bas" #'ignore)
(findings "warned.bas" #'ignore)
(findings "good.bas" #'ignore)
(findings "good.bas" (lambda () (goto-char (point-max)) (insert "30 PRIMT 1\n")))
END
PATH=$(dirname "$tbc"):$PATH emacs -Q --batch -L "$root/editors/emacs" -l flymake.el >shown 2>said || { cat said >&2; exit 1; }
diff - shown <<'END'
bad.bas:3:4: :error: syntax
bad.bas: 1
warned.bas:1:1: :warning: no line 20
warned.bas: 1
good.bas: 0
good.bas:3:7: :error: syntax
good.bas: 1
END

cat >make.vim <<'END'
setlocal makeprg=tbc\ check\ %
silent make!
call writefile(map(filter(getqflist(), 'v:val.valid'), {_, it -> bufname(it.bufnr) . ':' . it.lnum . ':' . it.col . ':' . it.text}), 'list')
quitall!
END
PATH=$(dirname "$tbc"):$PATH vim -u NONE -es -c 'source make.vim' bad.bas </dev/null >/dev/null
diff - list <<'END'
bad.bas:3:4: error: syntax
bad.bas:3:4: note: Tiny BASIC has no FOR; count with LET, IF and GOTO
END

python3 - "$root/docs/EDITORS.md" <<'END'
import json, re, sys, tomllib
readers = {"json": json.loads, "toml": tomllib.loads}
for kind, text in re.findall(r"^ *```(json|toml)\n(.*?)^ *```$", open(sys.argv[1]).read(), re.M | re.S):
    readers[kind](text)
END
echo "editors: Emacs and vim show what check says"
