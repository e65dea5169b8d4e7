local p={}

  -- the sum of two arguments
  function p.add (frame)
local args=frame.args
    if args [ 1 ] then return args[1]+args[2]
  elseif args.a then
return args.a - - 1
    end
end


return p
