with Run_Input;
procedure Main is
begin
Run_Input.Get (1);
end Main;
