with Run_Input;
procedure Main is
procedure One (A : Integer) is begin Run_Input.Get (A); end One;
begin One (1); end Main;
