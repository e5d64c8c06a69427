procedure P is begin Q; X.all.C := 1 + 2; Put ("a", X); Q;
if A then null; elsif B then null; elsif C then null; else null; null; end if;
while A loop exit when B; exit; end loop; for I in 1 .. N loop return; end loop; loop raise E.F; end loop;
begin null; exception when E | others => null; when others => null; end;
declare X : A; begin null; end;
exception when others => null; end;
