with Run_Input;
procedure Main is
N : Integer := 0; M : Integer := 0;
begin
Run_Input.Get (N, M);
end Main;
