with Ada.Text_IO;
procedure Main is
procedure Nothing (N : Integer) is begin null; end Nothing;
begin for I in 1 .. 1000 loop Nothing (I); end loop; Ada.Text_IO.Put_Line ("done"); end Main;
