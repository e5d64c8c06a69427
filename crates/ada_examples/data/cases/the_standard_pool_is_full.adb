with Ada.Text_IO;
procedure Main is
type Node; type Link is access Node;
type Node is record Value : Integer := 0; Next : Link; end record;
Head : Link; Count : Integer := 0;
begin
loop
Head := new Node'(Count, Head);
Count := Count + 1;
end loop;
exception
when Storage_Error => Ada.Text_IO.Put_Line (Integer'Image (Count));
end Main;
