with Ada.Finalization; with Ada.Text_IO; with Ada.Unchecked_Deallocation;
procedure Main is
   type Node;
   type Link is access Node;
   type Box;
   type Box_Link is access Box;
   type Node is record Held : Box_Link; Value : Integer := 0; end record;
   procedure Free_Node is new Ada.Unchecked_Deallocation (Node, Link);
   type Box is new Ada.Finalization.Limited_Controlled with record Back : Link; end record;
   overriding procedure Finalize (Object : in out Box);
   procedure Free_Box is new Ada.Unchecked_Deallocation (Box, Box_Link);
   overriding procedure Finalize (Object : in out Box) is
      Taken : Box_Link;
   begin
      Taken := Object.Back.Held;
      Object.Back.Held := null;
   exception
      when others => null;
   end Finalize;
   Top : Link := new Node;
begin
   Top.Held := new Box;
   Free_Box (Top.Held);
   Ada.Text_IO.Put_Line ("left");
end Main;
