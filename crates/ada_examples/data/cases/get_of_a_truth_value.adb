with Run_Input;
procedure Main is
B : Boolean := True;
begin
Run_Input.Get (B);
end Main;
