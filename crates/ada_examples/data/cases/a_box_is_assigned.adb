with Ada.Finalization; with Ada.Text_IO; with Ada.Unchecked_Deallocation;
procedure Main is
   type Node;
   type Link is access Node;
   type Node is record Value : Integer := 0; Next : Link; end record;
   procedure Free is new Ada.Unchecked_Deallocation (Node, Link);
   type Box is new Ada.Finalization.Controlled with record Item : Link; end record;
   overriding procedure Adjust (Object : in out Box);
   overriding procedure Finalize (Object : in out Box);
   type Box_Link is access Box;
   procedure Free_Box is new Ada.Unchecked_Deallocation (Box, Box_Link);
   overriding procedure Adjust (Object : in out Box) is
   begin
      if Object.Item = null then
         Object.Item := null;
      else
         Object.Item := new Node'(Value => Object.Item.Value + 1, Next => null);
      end if;
   exception
      when others => Object.Item := null;
   end Adjust;
   overriding procedure Finalize (Object : in out Box) is
   begin
      if Object.Item /= null then
         Ada.Text_IO.Put_Line (Integer'Image (Object.Item.Value));
      end if;
      Free (Object.Item);
   exception
      when Constraint_Error => null;
   end Finalize;
   A : Box_Link := new Box;
   B : Box_Link := new Box;
   C : Box;
begin
   A.Item := new Node'(Value => 1, Next => null);
   B.Item := new Node'(Value => 11, Next => null);
   B.all := A.all;
   C := B.all;
   A.all := C;
   Free_Box (B);
   Ada.Text_IO.Put_Line (Integer'Image (A.Item.Value));
end Main;
