procedure Main is
begin
null;
exception
when Run_Input.End_Error => null;
end Main;
