#!/usr/bin/env bash
# Tries the syntax files of editors/ on all examples: vim and Emacs in batch, Kate's highlighter, bat, GtkSourceView,
# and the patterns of the TextMate grammar each give every word, text, number and remark its group. Prints what doesn't,
# and then ends with status 1.
. "$(dirname "${BASH_SOURCE[0]}")/../setup.sh"
installs vim vim
installs emacs emacs-nox
installs kate-syntax-highlighter libkf5syntaxhighlighting-tools
installs batcat bat
installs xvfb-run xvfb
installs xauth xauth
/usr/bin/python3 -c 'import gi; gi.require_version("GtkSource", "4")' 2>/dev/null || gets python3-gi gir1.2-gtksource-4
needs python3
editors=$root/editors
sources=$(ls "$root"/examples/*.bas)

cat >groups.vim <<'END'
set nocompatible
let &runtimepath = $VIM_FILES . ',' . &runtimepath
filetype on
syntax on
for name in split($SOURCES, "\n")
  execute 'edit' fnameescape(name)
  let rows = []
  for line in range(1, line('$'))
    let groups = map(range(1, len(getline(line))), 'synIDattr(synID(line, v:val, 1), "name")')
    call add(rows, join(groups, ' '))
  endfor
  call writefile([name] + rows, 'vim', 'a')
endfor
quitall!
END
SOURCES=$sources VIM_FILES=$editors/vim vim -u NONE -es -S groups.vim </dev/null

cat >faces.el <<'END'
(require 'tinybasic-mode)
(dolist (name (split-string (getenv "SOURCES") "\n"))
  (with-current-buffer (find-file-noselect name)
    (unless (eq major-mode 'tinybasic-mode) (error "%s is no Tiny BASIC" name))
    (font-lock-ensure)
    (let ((rows (list name)))
      (goto-char (point-min))
      (while (not (eobp))
        (let (faces)
          (dotimes (place (- (line-end-position) (point)))
            (push (format "%s" (get-text-property (+ (point) place) 'face)) faces))
          (push (mapconcat #'identity (nreverse faces) " ") rows))
        (forward-line 1))
      (append-to-file (concat (mapconcat #'identity (nreverse rows) "\n") "\n") nil (getenv "ROWS")))))
END
emacs -Q --batch -L "$editors/emacs" --eval '(setq byte-compile-error-on-warn t)' \
    --eval "(setq byte-compile-dest-file-function (lambda (_) \"$work/mode.elc\"))" \
    -f batch-byte-compile "$editors/emacs/tinybasic-mode.el" 2>compiled || { cat compiled >&2; exit 1; }
SOURCES=$sources ROWS=$work/emacs emacs -Q --batch -L "$editors/emacs" -l faces.el 2>/dev/null

# A colour for each kind: the numbers of syntax_files.py.
kate=data/org.kde.syntax-highlighting
mkdir -p $kate/syntax $kate/themes bat/syntaxes bat/themes kept
cp "$editors/kate/tinybasic.xml" $kate/syntax
cp "$editors/bat/tinybasic.sublime-syntax" bat/syntaxes
styles=(Comment String Keyword ControlFlow Function DecVal Extension Variable Operator)
scopes=(comment string keyword.control.statement keyword.control.conditional support.function constant.numeric
    entity.name.label variable.other keyword.operator)
{
    echo '{ "metadata": { "name": "Kinds", "revision": 1 }, "text-styles": { "Normal": { "text-color": "#ffffff" }'
    for place in "${!styles[@]}"; do printf ', "%s": { "text-color": "#%06x" }' "${styles[place]}" $((place + 1)); done
    echo '}, "editor-colors": {}, "custom-styles": {} }'
} >$kate/themes/kinds.theme
{
    echo '<?xml version="1.0"?><plist version="1.0"><dict><key>name</key><string>Kinds</string><key>settings</key><array>'
    for place in "${!scopes[@]}"; do
        printf '<dict><key>scope</key><string>%s</string><key>settings</key><dict><key>foreground</key><string>#%06x</string></dict></dict>' \
            "${scopes[place]}" $((place + 1))
    done
    echo '</array></dict></plist>'
} >bat/themes/Kinds.tmTheme
batcat cache --build --source bat --target kept >/dev/null
for source in $sources; do
    name=$(basename "$source" .bas)
    XDG_DATA_HOME=$work/data QT_QPA_PLATFORM=offscreen kate-syntax-highlighter -s 'Tiny BASIC' -t Kinds "$source" >"$name.html"
    BAT_CACHE_PATH=kept COLORTERM=truecolor batcat --language 'Tiny BASIC' --theme Kinds --color always --style plain --paging never \
        "$source" >"$name.ansi"
done

cat >kinds.py <<'END'
import os
import sys
import gi
gi.require_version("GtkSource", "4")
from gi.repository import GtkSource
manager = GtkSource.LanguageManager()
manager.set_search_path([sys.argv[1], *manager.get_search_path()])
language = manager.get_language("tinybasic")
names = {language.get_style_name(it): it.split(":")[-1].replace("-", "") for it in language.get_style_ids()}
kinds = ["remark", "text", "statement", "conditional", "function", "number", "linenumber", "variable", "operator"]
with open("kinds.xml", "w") as out:
    styles = "".join(f'<style name="tinybasic:{"line-number" if it == "linenumber" else it}" foreground="#0000{place:02x}"/>' for place, it in enumerate(kinds, 1))
    out.write(f'<style-scheme id="kinds" name="Kinds" version="1.0">{styles}</style-scheme>')
schemes = GtkSource.StyleSchemeManager()
schemes.set_search_path(["."])
for name in os.environ["SOURCES"].split("\n"):
    buffer = GtkSource.Buffer(language=language, style_scheme=schemes.get_scheme("kinds"))
    buffer.set_text(open(name).read())
    buffer.ensure_highlight(*buffer.get_bounds())
    rows = [[]]
    place = buffer.get_start_iter()
    while not place.is_end():
        if place.get_char() == "\n":
            rows.append([])
        else:
            blues = [round(it.props.foreground_rgba.blue * 255) for it in place.get_tags() if it.props.foreground_set]
            rows[-1].append(kinds[blues[-1] - 1] if blues else "-")
        place.forward_char()
    with open("gtksourceview", "a") as out:
        out.write("\n".join([name, *(" ".join(it) for it in rows)]) + "\n")
END
SOURCES=$sources xvfb-run -a /usr/bin/python3 kinds.py "$editors/gtksourceview" 2>gtk.errors || { cat gtk.errors >&2; exit 1; }
python3 "$root/tools/try/syntax_files.py" "$root" .
