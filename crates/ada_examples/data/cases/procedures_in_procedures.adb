with Ada.Text_IO;
procedure Main is
procedure Outer (N : Integer) is
procedure Inner (M : Integer) is begin Ada.Text_IO.Put_Line (Integer'Image (M)); end Inner;
begin Inner (N + 1); Inner (N + 2); end Outer;
begin Outer (5); Outer (7); end Main;
