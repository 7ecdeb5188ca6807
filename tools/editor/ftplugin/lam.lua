-- Starts tools/lam_server.py for a text of lam in Neovim, or joins the session that is there already.
local here = vim.loop.fs_realpath(debug.getinfo(1, 'S').source:sub(2))
local server = vim.fn.fnamemodify(here, ':h:h:h') .. '/lam_server.py'
local config = { name = 'lam', cmd = { server }, root_dir = vim.fn.fnamemodify(here, ':h:h:h:h') }

if vim.lsp.start then
  vim.lsp.start(config)
else -- before Neovim 0.8
  _G.lam_session = _G.lam_session or vim.lsp.start_client(config)
  vim.lsp.buf_attach_client(0, _G.lam_session)
end
