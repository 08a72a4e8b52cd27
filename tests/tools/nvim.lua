-- Uses ick-lsp by Neovim's own client on the file that is open: prints a line of JSON for each answer.
local uri = vim.uri_from_bufnr(0)
local out = io.open(vim.env.OUT, "w")

local function say(name, value)
  out:write(vim.json.encode({ name, value == nil and vim.NIL or value }), "\n")
end

local function wait(holds)
  return vim.wait(60000, holds, 20)
end

local id = vim.lsp.start_client({ name = "ick", cmd = { "ick-lsp" } })
vim.lsp.buf_attach_client(0, id)
say("attached", wait(function() return vim.lsp.buf_is_attached(0, id) end))
say("told", wait(function() return #vim.diagnostic.get(0) > 0 end))
for _, one in ipairs(vim.diagnostic.get(0)) do
  say("diagnostic", { one.lnum + 1, one.col + 1, one.message, one.severity })
end

local function ask(method, line, text, more)
  local start = vim.api.nvim_buf_get_lines(0, line - 1, line, true)[1]:find(text, 1, true)
  local given = vim.tbl_extend("force", {
    textDocument = { uri = uri }, position = { line = line - 1, character = start - 1 },
  }, more or {})
  local answers, reason = vim.lsp.buf_request_sync(0, method, given, 60000)
  local answer = answers and answers[id]
  return answer and (answer.result or answer.err) or reason
end

say("hover", ask("textDocument/hover", 1, ".1").contents.value)
say("definition", ask("textDocument/definition", 3, "(7)").range.start.line)
say("references", #ask("textDocument/references", 4, "(7)", { context = { includeDeclaration = true } }))
local found = ask("textDocument/completion", 1, "READ")
local items = vim.lsp.util.text_document_completion_list_to_complete_items(found, "")
say("completion", vim.tbl_map(function(one) return one.word end, items))
local where = { line = 5, character = 4 }
local actions = ask("textDocument/codeAction", 6, "5", { range = { start = where, ["end"] = where }, context = { diagnostics = {} } })
for _, action in ipairs(actions) do
  say("action", action.title)
  if action.title:find("mesh", 1, true) then vim.lsp.util.apply_workspace_edit(action.edit, "utf-16") end
end
say("mended", vim.api.nvim_buf_get_lines(0, 5, 6, true)[1])
vim.api.nvim_win_set_cursor(0, { 1, 12 })
vim.lsp.buf.rename(".23")
say("renamed", wait(function() return vim.api.nvim_buf_get_lines(0, 5, 6, true)[1]:find(".23", 1, true) ~= nil end))
say("lines", vim.api.nvim_buf_get_lines(0, 0, -1, true))
-- what is typed goes to the server as changes of parts
vim.api.nvim_buf_set_lines(0, 0, 0, true, { "PLEASE .5 <- 5" })
say("changed", wait(function()
  return vim.tbl_contains(vim.tbl_map(function(one) return one.lnum end, vim.diagnostic.get(0)), 0)
end))
vim.lsp.stop_client(id)
say("stopped", wait(function() return vim.lsp.client_is_stopped(id) end))
out:close()
vim.cmd("qall!")
