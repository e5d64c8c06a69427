with Ada.Text_IO;
procedure Main is
procedure Add (Sum : in out Integer; N : Integer) is begin Sum := Sum + N; end Add;
Total : Integer := 0;
begin for I in 1 .. 100 loop Add (Total, I); end loop; Ada.Text_IO.Put_Line (Integer'Image (Total)); end Main;
