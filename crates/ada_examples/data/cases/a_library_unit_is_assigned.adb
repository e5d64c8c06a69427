with Run_Input;
procedure Main is
begin Run_Input := 1; end Main;
