with Ada.Text_IO;
with Ada.Unchecked_Deallocation;

procedure Main is
   type Node;
   type Link is access Node;
   type Node is record
      Value : Integer := 0;
      Next  : Link;
   end record;
   procedure Free is new Ada.Unchecked_Deallocation (Node, Link);
   procedure Next (I : in out Integer; M : in out Node) is
   begin
      M.Next := new Node'(9, null);
      I := I + 1;
   end Next;
   R : Node;
   B : access Node := R.Next;
begin
   R.Next := new Node'(5, null);
   B := R.Next;
   Next (B.Value, R);
   Ada.Text_IO.Put_Line (Integer'Image (R.Next.Value));
   Ada.Text_IO.Put_Line (Integer'Image (B.Value));
end Main;
