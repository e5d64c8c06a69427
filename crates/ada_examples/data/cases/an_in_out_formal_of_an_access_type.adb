with Ada.Text_IO;
procedure Main is
type Node; type Link is access Node;
type Node is record Value : Integer := 0; end record;
procedure One (A : in out Link) is begin A := null; end One;
L : Link;
begin One (L); end Main;
