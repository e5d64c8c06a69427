with Ada.Text_IO;
with Ada.Unchecked_Deallocation;

procedure Main is
   type Node;
   type Link is access Node;
   type Node is record
      Value : Integer := 0;
      Next  : Link;
   end record;
   procedure Free is new Ada.Unchecked_Deallocation (Node, Link);
   type Box is record
      Inner : Node;
      Open  : Boolean := True;
   end record;
   procedure Pop (B : in out Box) is
      X : Link;
   begin
      X := B.Inner.Next;
      B.Inner.Next := null;
      Free (X);
   end Pop;
   R : Box;
begin
   R.Inner.Next := new Node'(5, null);
   Pop (R);
   if R.Inner.Next = null then
      Ada.Text_IO.Put_Line (Integer'Image (0));
   end if;
end Main;
