with Ada.Text_IO;
with Ada.Unchecked_Deallocation;

procedure Main is
   type Node;
   type Link is access Node;
   type Node is record
      Value : Integer := 0;
   end record;
   procedure Show is
      type Node;
      type Other is access Node;
      type Node is record
         Value : Integer := 0;
      end record;
      procedure Inner (N : Node) is
      begin
         Ada.Text_IO.Put_Line (Integer'Image (N.Value));
      end Inner;
      O : Other := new Node'(Value => 4);
   begin
      Inner (O.all);
   end Show;
begin
   Show;
end Main;
