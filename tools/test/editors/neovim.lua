-- Prints the errors of a buffer in Neovim, an edit that fixes them, its semantic tokens, the formatted text, the error of a module, and the definition,
-- symbols, hover and completions of another, each on a line.
-- usage: SERVER=PROGRAM nvim --headless -u NONE -c 'luafile neovim.lua' FILE
local function say(...) io.stdout:write(table.concat({ ... }, ' '), '\n') end

local function faults_are(count)
  return vim.wait(60000, function() return #vim.diagnostic.get(0) == count end, 10)
end

local function replace(text)
  vim.api.nvim_buf_set_lines(0, 0, -1, true, { text })
end

local function say_fault()
  local fault = vim.diagnostic.get(0)[1]
  local at = vim.api.nvim_buf_get_text(0, fault.lnum, fault.col, fault.end_lnum, fault.end_col, {})
  say('fault', fault.lnum, fault.source, table.concat(at, '|'))
end

local function error_of_module()
  replace('(module (func frob))')
  assert(faults_are(1), 'no error of the compiler')
  say_fault()
  replace('(module (func $f (param $x i32)) (func (call $f (i32.const 1))))')
  assert(faults_are(0), 'an error in a module')
end

local function ask(client, method, params)
  return vim.lsp.buf_request_sync(0, 'textDocument/' .. method, params, 10000)[client].result
end

-- Requests at the last `$f`, to whose definition the cursor jumps.
local function requests_in_module(client)
  vim.api.nvim_win_set_cursor(0, { 1, 45 })
  local params = vim.lsp.util.make_position_params()
  local symbols = ask(client, 'documentSymbol', { textDocument = params.textDocument })
  say('symbols', symbols[1].name, symbols[1].children[1].name, symbols[1].children[2].name)
  say('hover', (ask(client, 'hover', params).contents.value:gsub('\n', '|')))
  say('completion', ask(client, 'completion', params)[1].label)
  vim.lsp.buf.definition()
  vim.wait(60000, function() return vim.api.nvim_win_get_cursor(0)[2] ~= 45 end, 10)
  say('definition', vim.api.nvim_win_get_cursor(0)[2])
end

local function session()
  local client = vim.lsp.start_client({ name = 'wat', cmd = { os.getenv('SERVER') } })
  vim.lsp.buf_attach_client(0, client)
  assert(faults_are(1), 'no fault')
  local fault = vim.diagnostic.get(0)[1]
  local at = vim.api.nvim_buf_get_text(0, fault.lnum, fault.col, fault.end_lnum, fault.end_col, {})
  say('fault', fault.lnum, fault.message, table.concat(at, '|'))
  vim.api.nvim_buf_set_text(0, fault.end_lnum, fault.end_col - 1, fault.end_lnum, fault.end_col - 1, { '"' })
  assert(faults_are(0), 'a fault that is mended')
  say('no fault')
  local asked = { textDocument = vim.lsp.util.make_text_document_params() }
  local answer = vim.lsp.buf_request_sync(0, 'textDocument/semanticTokens/full', asked, 10000)[client]
  say('colours', table.concat(answer.result.data, ' '))
  vim.lsp.buf.formatting_sync({}, 10000)
  say(table.concat(vim.api.nvim_buf_get_lines(0, 0, -1, true), '\n'))
  error_of_module()
  requests_in_module(client)
end

local done, why = pcall(session)
if not done then say('error', why) end
vim.cmd(done and 'qall!' or 'cquit!')
