with Ada.Finalization; with Ada.Text_IO; with Ada.Unchecked_Deallocation;
procedure Main is
   type Node;
   type Link is access Node;
   type Shelf is new Ada.Finalization.Limited_Controlled with record Spare : Link; end record;
   overriding procedure Initialize (Object : in out Shelf);
   overriding procedure Finalize (Object : in out Shelf);
   type Place is new Ada.Finalization.Limited_Controlled with record Next : Link; end record;
   overriding procedure Initialize (Object : in out Place);
   type Node is new Ada.Finalization.Limited_Controlled with record Number : Integer := 1; Home : Place; end record;
   overriding procedure Initialize (Object : in out Node);
   procedure Free is new Ada.Unchecked_Deallocation (Node, Link);
   overriding procedure Initialize (Object : in out Shelf) is
   begin
      Free (Object.Spare);
   end Initialize;
   overriding procedure Finalize (Object : in out Shelf) is
   begin
      Free (Object.Spare);
   end Finalize;
   overriding procedure Initialize (Object : in out Node) is
   begin
      Object.Number := 2;
   end Initialize;
   overriding procedure Initialize (Object : in out Place) is
   begin
      Free (Object.Next);
   end Initialize;
   N : Link := new Node;
   S : Shelf;
begin
   Ada.Text_IO.Put_Line (Integer'Image (N.Number));
end Main;
