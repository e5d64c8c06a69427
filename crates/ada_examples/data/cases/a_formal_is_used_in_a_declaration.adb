with Ada.Text_IO;
procedure Main is
procedure One (A : Integer; B : A) is begin null; end One;
begin One (1, 2); end Main;
