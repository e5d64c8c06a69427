procedure P is begin if A then end if; end;
