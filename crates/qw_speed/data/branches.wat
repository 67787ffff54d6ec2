(module
  (memory 1)
  (func (export "run") (local i32 i32 i32 i32)
    (loop
      local.get 1
      i32.const 1
      i32.and
      if
        local.get 2
        i32.const 1
        i32.add
        local.set 2
      else
        local.get 3
        i32.const 1
        i32.add
        local.set 3
      end
      local.get 1
      i32.const 1
      i32.add
      local.tee 1
      i32.const 10000000
      i32.lt_u
      br_if 0)))
