with Run_Input;
procedure Main is
begin
   for I in 1 .. 2 loop
      Run_Input.Get (I);
   end loop;
end Main;
