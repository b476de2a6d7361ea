-- Scripts, assembly texts and sources of pip in Neovim 0.7 or later. In init.lua, with the checkout's path:
--     dofile("/home/me/pip/tools/editors/pip.lua")
-- With vim.g.pip_unproved = true before it, the program is the one that ./pip --unproved has built.
local file = debug.getinfo(1, "S").source:sub(2)
local checkout = vim.fn.fnamemodify(vim.fn.resolve(vim.fn.fnamemodify(file, ":p")), ":h:h:h")

local function words(tool)
  local found = { "-B", checkout .. "/tools/" .. tool }
  if vim.g.pip_unproved then table.insert(found, "--unproved") end
  return found
end

-- Filetypes: the suffix .s is another language's outside of the checkout
local group = vim.api.nvim_create_augroup("pip", {})
local function detect(pattern, kind, only)
  local function found(given)
    local path = vim.fn.resolve(vim.fn.fnamemodify(given.match, ":p"))
    if not only or path:sub(1, #checkout + 1) == checkout .. "/" then vim.bo[given.buf].filetype = kind end
  end
  vim.api.nvim_create_autocmd({ "BufRead", "BufNewFile" }, { group = group, pattern = pattern, callback = found })
end
detect("*.pip", "pip", false)
detect("*.s", "pip", true)
detect("*.asmx", "asmx", false)

-- Colours, where no plugin reads the TextMate grammars
local colours = [[
  syntax match Comment /^#.*\|\s\zs#.*/
  syntax match Label /^\s*[A-Za-z_]\w*:/
  syntax match PreProc /^\s*\.\l\+/
  syntax match Statement /^\s*\([A-Za-z_]\w*:\s*\)\?\zs\l\+\>/
  syntax match Identifier /\<r\(\d\|1[0-5]\)\>/
  syntax match Number /\<\(0x\x\+\|\d\+\)\>/
]]

vim.api.nvim_create_autocmd("Syntax", { group = group, pattern = { "pip", "asmx" }, callback = function(given)
  vim.schedule(function()              -- after the editor has looked for a file of its own
    if vim.api.nvim_buf_is_valid(given.buf) then vim.api.nvim_buf_call(given.buf, function() vim.cmd(colours) end) end
  end)
end })

-- The language server: one for all texts
local client
local function attach(given)
  vim.bo[given.buf].commentstring = "# %s"
  local server = { name = "pip", cmd = vim.list_extend({ "python3" }, words("language_server")), root_dir = checkout }
  if vim.lsp.start then
    vim.lsp.start(server, { bufnr = given.buf })
  else
    client = client and vim.lsp.get_client_by_id(client) and client or vim.lsp.start_client(server)
    vim.lsp.buf_attach_client(given.buf, client)
  end
  vim.bo[given.buf].omnifunc = "v:lua.vim.lsp.omnifunc"
end
vim.api.nvim_create_autocmd("FileType", { group = group, pattern = { "pip", "asmx" }, callback = attach })

-- The debugger, if nvim-dap is installed
local has_dap, dap = pcall(require, "dap")
if has_dap then
  dap.adapters.pip = { type = "executable", command = "python3", args = words("debug_adapter") }
  dap.configurations.pip = { { type = "pip", request = "launch", name = "this file", program = "${file}" } }
  dap.configurations.asmx = dap.configurations.pip
end
