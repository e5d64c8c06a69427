with Ada.Finalization; with Ada.Text_IO; with Ada.Unchecked_Deallocation;
procedure Main is
   type Node;
   type Link is access Node;
   type Count is new Ada.Finalization.Limited_Controlled with record Value : Integer := 4; end record;
   type Node is new Ada.Finalization.Limited_Controlled with record Next : Link; Inner : Count; end record;
   overriding procedure Initialize (Object : in out Node);
   overriding procedure Finalize (Object : in out Count);
   procedure Free is new Ada.Unchecked_Deallocation (Node, Link);
   overriding procedure Initialize (Object : in out Node) is
   begin
      Free (Object.Next);
      Object.Inner.Value := 5;
      raise Program_Error;
   end Initialize;
   overriding procedure Finalize (Object : in out Count) is
   begin
      Ada.Text_IO.Put_Line (Integer'Image (Object.Value));
   end Finalize;
   N : Link;
begin
   N := new Node;
   Ada.Text_IO.Put_Line ("never");
exception
   when Program_Error =>
      if N = null then
         Ada.Text_IO.Put_Line ("null");
      end if;
end Main;
