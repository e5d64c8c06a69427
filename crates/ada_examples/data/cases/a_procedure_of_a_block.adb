with Ada.Text_IO;
procedure Main is
begin for I in 1 .. 2 loop declare
procedure Show (N : Integer) is begin Ada.Text_IO.Put_Line (Integer'Image (N)); end Show;
begin Show (I); end; end loop; end Main;
