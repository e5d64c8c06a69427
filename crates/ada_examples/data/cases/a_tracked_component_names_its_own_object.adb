with Ada.Finalization; with Ada.Text_IO;
procedure Main is
   type Node;
   type Link is access Node;
   type Tail is new Ada.Finalization.Controlled with record Next : Link; end record;
   overriding procedure Adjust (Object : in out Tail);
   type Node is record Number : Integer := 0; Behind : Tail; end record;
   overriding procedure Adjust (Object : in out Tail) is
   begin
      if Object.Next = null then
         Ada.Text_IO.Put_Line ("the last node");
      end if;
      Object.Next := null;
   end Adjust;
   First : Link := new Node;
begin
   First.Number := 1;
   First.Behind.Next := new Node;
   First.Behind.Next.all := First.all;
   First.all := First.Behind.Next.all;
   if First.Behind.Next = null then
      Ada.Text_IO.Put_Line (Integer'Image (First.Number));
   end if;
end Main;
