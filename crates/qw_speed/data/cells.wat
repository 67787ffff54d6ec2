(module
  (memory 1)
  (func (export "run") (local i32 i32 i32)
    (loop
      local.get 1
      i32.const 4095
      i32.and
      i32.const 3
      i32.shl
      local.tee 2
      local.get 2
      i64.load
      i64.const 1
      i64.add
      i64.store
      local.get 1
      i32.const 1
      i32.add
      local.tee 1
      i32.const 10000000
      i32.lt_u
      br_if 0)))
