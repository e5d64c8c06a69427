with Ada.Text_IO;
with Ada.Unchecked_Deallocation;

procedure Main is
   type Node;
   type Link is access Node;
   type Node is record
      Value : Integer := 0;
      Next  : Link;
   end record;
   procedure Free is new Ada.Unchecked_Deallocation (Node, Link);
   procedure Move (M : in out Node; N : in out Node) is
   begin
      M.Next := N.Next;
      N.Next := null;
   end Move;
   R : Node;
   S : Node;
begin
   S.Next := new Node'(6, null);
   Move (R, S);
   Ada.Text_IO.Put_Line (Integer'Image (R.Next.Value));
end Main;
