-- For nvim-dap: put this file below lua/ and write require('ebpf').setup{} in init.lua.
-- :lua require('dap').continue() in a buffer of a run file or of C then debugs it.
-- SPDX-License-Identifier: MIT OR Apache-2.0
local M = {}

-- Shows what a custom request lists, and replays what is chosen.
local function choose(kind, list, key, text)
  local session = require('dap').session()
  if not session then
    vim.notify('Debug a run file first')
    return
  end
  session:request(kind, {}, function(err, body)
    if err then
      vim.notify(err.message or tostring(err))
      return
    end
    vim.ui.select(body[list], { prompt = body.summary, format_item = text }, function(it)
      if it then
        session:request('replay', { [key] = it.number }, function() end)
      end
    end)
  end)
end

function M.setup(options)
  local adapter = (options or {}).adapter or { 'ebpf-dap' }
  local dap = require('dap')
  dap.adapters.ebpf = { type = 'executable', command = adapter[1], args = { unpack(adapter, 2) } }
  local file = { { type = 'ebpf', request = 'launch', name = 'ebpf: this file', program = '${file}' } }
  dap.configurations['ebpf-run'] = file
  dap.configurations.c = vim.list_extend(dap.configurations.c or {}, file)
  vim.api.nvim_create_user_command('EbpfOutcomes', function()
    choose('outcomes', 'outcomes', 'outcome', function(it) return table.concat(it.lines, '; ') end)
  end, {})
  vim.api.nvim_create_user_command('EbpfRaces', function()
    choose('races', 'races', 'race', function(it) return it.line end)
  end, {})
  vim.api.nvim_create_user_command('EbpfHung', function()
    choose('hung', 'hung', 'hung', function(it) return 'by ' .. it.schedule end)
  end, {})
end

return M
