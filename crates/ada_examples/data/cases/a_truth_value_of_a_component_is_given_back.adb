with Ada.Text_IO;
with Ada.Unchecked_Deallocation;

procedure Main is
   type Node;
   type Link is access Node;
   type Node is record
      Value : Integer := 0;
      Next  : Link;
   end record;
   procedure Free is new Ada.Unchecked_Deallocation (Node, Link);
   type Box is record
      Inner : Node;
      Open  : Boolean := True;
   end record;
   procedure Shut (O : in out Boolean) is
   begin
      O := not O;
   end Shut;
   X : Box;
begin
   Shut (X.Open);
   if X.Open then
      Ada.Text_IO.Put_Line (Integer'Image (1));
   else
      Ada.Text_IO.Put_Line (Integer'Image (0));
   end if;
end Main;
