with Run_Input;
procedure Main is
begin
Run_Input.Get;
end Main;
