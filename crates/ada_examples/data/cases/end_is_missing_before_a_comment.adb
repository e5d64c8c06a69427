procedure P is
  begin  -- and no more