-- Opens a document in neovim with the server, changes it, and prints what neovim shows.
local client = vim.lsp.start_client({ name = "graphql-check", cmd = vim.json.decode(os.getenv("SERVER")), root_dir = vim.fn.getcwd() })
vim.lsp.buf_attach_client(0, client)

local function tell(wanted)
  vim.wait(30000, function() return #vim.diagnostic.get(0) == wanted end, 20)
  local found = vim.diagnostic.get(0)
  for _, it in ipairs(found) do
    print(("\ntold: %d:%d %s %s"):format(it.lnum + 1, it.col + 1, it.code or it.user_data.lsp.code, vim.split(it.message, "\n")[1]))
  end
  if #found == 0 then print("\ntold: none") end
end

tell(1)
vim.api.nvim_buf_set_lines(0, 1, 2, false, { "  product(id: $id) { name ...Price }" })
tell(0)
vim.api.nvim_buf_set_lines(0, 1, 2, false, { "  product(id: $id) { name ok: name ...Pric }" })
tell(1)
local at = { textDocument = { uri = vim.uri_from_bufnr(0) }, position = { line = 1, character = 4 } }
local answer = vim.lsp.buf_request_sync(0, "textDocument/definition", at, 30000)[client].result[1]
print(("\ntold: %s:%d:%d"):format(vim.fn.fnamemodify(vim.uri_to_fname(answer.uri), ":."), answer.range.start.line + 1, answer.range.start.character + 1))
vim.lsp.stop_client(client)
vim.cmd("qall!")
