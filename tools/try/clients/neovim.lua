-- What neovim's own client shows of a source while it is edited, with `tbc lsp` as the server that docs/EDITORS.md starts.
local function fails(text)
    io.stderr:write('neovim: ' .. text .. '\n')
    vim.cmd('cquit 1')
end

if not vim.wait(10000, function() return vim.lsp.get_active_clients()[1] ~= nil end, 20) then fails('the server does not start') end
local client = vim.lsp.get_active_clients()[1]
local ended
client.config.on_exit = function(code) ended = code end

-- The diagnostics as lines, in the order of their places; columns are bytes.
local function shown()
    local lines = {}
    for _, it in ipairs(vim.diagnostic.get(0)) do
        local of = it.severity == vim.diagnostic.severity.ERROR and 'error' or 'warning'
        table.insert(lines, ('%d:%d-%d %s %s: %s'):format(it.lnum + 1, it.col, it.end_col, of, it.code, it.message))
    end
    table.sort(lines)
    return table.concat(lines, '\n')
end

-- Waits until the diagnostics are these, for ten seconds at most.
local function shows(wanted)
    if not vim.wait(10000, function() return shown() == wanted end, 20) then
        fails('shows:\n' .. shown() .. '\nwanted:\n' .. wanted)
    end
end

local function write(line, text)
    vim.api.nvim_buf_set_lines(0, line - 1, math.min(line, vim.api.nvim_buf_line_count(0)), true, { text })
end

shows('1:10-12 error bad-byte: bad byte: a text holds letters, digits, spaces and the signs from ! to @\n'
    .. '3:6-8 error syntax: syntax: did you mean PRINT')
write(1, '10 PRINT "E"')
shows('3:6-8 error syntax: syntax: did you mean PRINT')
write(3, '30 END')
shows('2:0-10 warning no-line: no line 99')
write(2, '20 GOTO 30')
shows('')
write(3, '20 GOTO 10')
shows('2:0-10 warning replaced: line 20 is replaced by line 3 of the file')

-- What the server answers to a request on the buffer, as neovim reads it.
local function asked(method, params)
    params.textDocument = vim.lsp.util.make_text_document_params()
    local answers = vim.lsp.buf_request_sync(0, 'textDocument/' .. method, params, 10000)
    for _, it in pairs(answers or {}) do
        if it.result then return it.result end
    end
    fails('no answer to ' .. method)
end

local function is(what, found, wanted)
    if found ~= wanted then fails(what .. ': ' .. tostring(found) .. '\nwanted: ' .. tostring(wanted)) end
end

-- Ranges as texts, in their order.
local function ranges(found)
    local texts = {}
    for _, it in ipairs(found) do
        local r = it.range
        table.insert(texts, ('%d:%d-%d'):format(r.start.line + 1, r.start.character, r['end'].character))
    end
    return table.concat(texts, ' ')
end

local function at(line, character) return { position = { line = line - 1, character = character } } end

write(3, '30 REM the end')
write(4, '40 GOSUB 30')
write(5, '50 LET A=A+1')
write(6, '60 END')
shows('')
is('definition', ranges({ asked('definition', at(2, 8)) }), '3:0-2')
local line_30 = at(3, 0)
line_30.context = { includeDeclaration = true }
is('references', ranges(asked('references', line_30)), '2:8-10 3:0-2 4:9-11')
is('highlights', ranges(asked('documentHighlight', at(5, 7))), '5:7-8 5:9-10')
is('symbols', asked('documentSymbol', {})[1].name, 'GOSUB 30: the end')
is('hover', asked('hover', at(5, 7)).contents.value, 'A: $C000\nset in 50\nread in 50')
is('hover', asked('hover', at(2, 1)).contents.value:match('^line 20: %$%x%x%x%x, %d+ bytes, cost 132$') ~= nil, true)
is('what may be renamed', asked('prepareRename', at(5, 7)).placeholder, 'A')
is('folding', #asked('foldingRange', {}), 0)
is('the tokens of the first line', table.concat(asked('semanticTokens/full', {}).data, ' ', 1, 15), '0 0 2 2 1 0 3 5 0 0 0 6 3 3 0')
write(6, '60 GO')
local offered = asked('completion', at(6, 5)).items
is('completion', offered[1].label .. ' ' .. offered[2].label, 'GOTO GOSUB')
vim.lsp.util.apply_text_edits({ offered[1].textEdit }, 0, 'utf-16')
is('the completed line', vim.api.nvim_buf_get_lines(0, 5, 6, true)[1], '60 GOTO ')
write(6, '60 END')
shows('')
local renamed = at(5, 7)
renamed.newName = 'Q'
vim.lsp.util.apply_workspace_edit(asked('rename', renamed), 'utf-16')
is('the renamed line', vim.api.nvim_buf_get_lines(0, 4, 5, true)[1], '50 LET Q=Q+1')
write(6, '60 RETURN')
shows('')
is('folding', asked('foldingRange', {})[1].endLine, 5)
write(5, '50 PRINT RND(6)')
shows('5:0-15 warning even-bound: RND(6) is odd and even in turns; RND(32766)/5461 is better')
local better = asked('codeAction', {
    range = { start = { line = 4, character = 0 }, ['end'] = { line = 4, character = 0 } },
    context = { diagnostics = {} },
})
vim.lsp.util.apply_workspace_edit(better[1].edit, 'utf-16')
is('the better bound', vim.api.nvim_buf_get_lines(0, 4, 5, true)[1], '50 PRINT (RND(32766)/5461)')
shows('')
write(6, '60 PRIMT A')
shows('6:6-8 error syntax: syntax: did you mean PRINT')
local fixes = asked('codeAction', {
    range = { start = { line = 5, character = 0 }, ['end'] = { line = 5, character = 0 } },
    context = { diagnostics = {} },
})
is('fixes', #fixes, 1)
is('fix', fixes[1].title, 'Write PRINT')
vim.lsp.util.apply_workspace_edit(fixes[1].edit, 'utf-16')
is('the fix', vim.api.nvim_buf_get_lines(0, 5, 6, true)[1], '60 PRINT A')
client.stop()
if not vim.wait(10000, function() return ended ~= nil end, 20) then fails('the server does not end') end
if ended ~= 0 then fails('the server ended with status ' .. ended) end
vim.cmd('qall!')
