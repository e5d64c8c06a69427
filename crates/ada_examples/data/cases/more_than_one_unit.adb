procedure P is
begin null; end P; P
