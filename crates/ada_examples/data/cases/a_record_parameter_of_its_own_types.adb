with Ada.Text_IO;
with Ada.Unchecked_Deallocation;

procedure Main is
   type Node;
   type Link is access Node;
   type Node is record
      Value : Integer := 0;
      Next  : Link;
   end record;
   procedure Free is new Ada.Unchecked_Deallocation (Node, Link);
   procedure Fill (N : in out Node; Count : Integer) is
      type Cell is record
         Up : Link;
      end record;
      type Chain is access Cell;
      C : Chain;
   begin
      for I in 1 .. Count loop
         C := new Cell'(Up => null);
         C.Up := new Node'(I, null);
         N.Next := C.Up;
         C.Up := null;
      end loop;
   end Fill;
   R : Node;
begin
   Fill (R, 3);
   Ada.Text_IO.Put_Line (Integer'Image (R.Next.Value));
end Main;
