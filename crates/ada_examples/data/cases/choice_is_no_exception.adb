procedure Main is
begin
null;
exception
when Constraint_Error | Main => null;
end Main;
