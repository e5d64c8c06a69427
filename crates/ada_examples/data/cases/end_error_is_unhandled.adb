with Run_Input;
procedure Main is
N : Integer := 0;
begin
while N /= 1 loop Run_Input.Get (N); end loop;
exception
when Constraint_Error => null;
end Main;
