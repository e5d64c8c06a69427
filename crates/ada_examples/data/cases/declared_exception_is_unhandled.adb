procedure Main is
Too_Big : exception;
begin
raise Too_Big;
exception
when Program_Error | Storage_Error | Constraint_Error => null;
end Main;
