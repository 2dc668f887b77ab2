-- The text of a page for a man page: without its title, and without what its links lead to.
function Header(header)
  if header.level == 1 then
    return {}
  end
end

function Link(link)
  return link.content
end

-- A long line of JSON may be broken after a comma.
function Code(code)
  local parts = {}
  for part in code.text:gmatch("[^,]*,?") do
    if #part > 0 then
      table.insert(parts, pandoc.Code(part))
      table.insert(parts, pandoc.RawInline("man", "\\:"))
    end
  end
  table.remove(parts)
  return parts
end
