with Ada.Finalization; with Ada.Text_IO; with Ada.Unchecked_Deallocation;
procedure Main is
   type Cell is record Value : Integer := 6; end record;
   type Link is access Cell;
   procedure Free is new Ada.Unchecked_Deallocation (Cell, Link);
   type List is new Ada.Finalization.Controlled with record Head : Link; end record;
   overriding procedure Adjust (Object : in out List);
   overriding procedure Finalize (Object : in out List);
   type Count is new Ada.Finalization.Controlled with record Value : Integer := 2; end record;
   overriding procedure Adjust (Object : in out Count);
   type Holder is new Ada.Finalization.Limited_Controlled with record Held : Link; Own : Count; end record;
   overriding procedure Initialize (Object : in out Holder);
   overriding procedure Finalize (Object : in out Holder);
   overriding procedure Adjust (Object : in out List) is
   begin
      Object.Head := null;
   end Adjust;
   overriding procedure Finalize (Object : in out List) is
   begin
      Free (Object.Head);
   end Finalize;
   overriding procedure Adjust (Object : in out Count) is
   begin
      Object.Value := Object.Value + 1;
   exception
      when Constraint_Error => null;
   end Adjust;
   overriding procedure Initialize (Object : in out Holder) is
      Twin : Count;
   begin
      Twin := Object.Own;
      Object.Held := new Cell;
      Object.Held.Value := Twin.Value;
   end Initialize;
   overriding procedure Finalize (Object : in out Holder) is
   begin
      Free (Object.Held);
   end Finalize;
   H : Holder;
begin
   Ada.Text_IO.Put_Line (Integer'Image (H.Held.Value));
end Main;
